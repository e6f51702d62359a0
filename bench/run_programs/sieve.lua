local n, m = 100000, 0
for l = 1, @N do
  local out = {}
  for i = 1, n do out[i] = false end
  m = 0
  for i = 2, n do
    if not out[i] then
      m = m + 1
      for j = 2 * i, n, i do out[j] = true end
    end
  end
end
print(m)
