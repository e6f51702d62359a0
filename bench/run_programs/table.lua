local n, a = 100, {}
for i = 1, n do a[i] = {} end
for j = 1, n do for i = 1, n do a[i][j] = i * j end end
local k = 0
for l = 1, @N do
  for j = 1, n do for i = 1, n do k = k + a[i][j] end end
end
print(k)
