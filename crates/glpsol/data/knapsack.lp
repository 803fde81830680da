max
 8 a + 11 b + 6 c + 4 d
st
 5 a + 7 b + 4 c + 3 d <= 14
binary
 a b c d
end
