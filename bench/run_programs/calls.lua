local k = { 0 }
local function add(k, i) k[1] = k[1] + i end
for i = 1, @N do add(k, i) end
print(k[1])
