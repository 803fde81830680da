\ One free column: the least value of x + 1 where 2 x is at least 3
min
 x + 1
st
 c: x + x >= 3
bounds
 x free
end
