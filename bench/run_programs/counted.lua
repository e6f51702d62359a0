local k = 0
for i = 1, @N do k = k + i end
print(k)
