-- What is sold, and its prices in cents.
local cents = { tea = 250, coffee = 320, cake = 400 }

local prices = { things = { "tea", "coffee", "cake" } }

-- The price of a thing. One that isn't sold has none, which is an error.
function prices.of(thing)
  local price = cents[thing]
  if not price then error("no price of " .. thing) end
  return price
end

return prices
