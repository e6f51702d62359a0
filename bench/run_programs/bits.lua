local k = 0
for i = 1, @N do
  local j = i
  while j ~= 0 do
    k = k + j % 2
    j = j // 2
  end
end
print(k)
