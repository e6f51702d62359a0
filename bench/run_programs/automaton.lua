local k, m, j = 0, 1, 7
for i = 1, @N do
  j = (j * 75 + 74) % 65537
  if m == 1 then m = 1 + j % 4
  elseif m == 2 then m = 1 + (j + 1) % 4
  elseif m == 3 then m = 1 + (j + m) % 4
  else k = k + 1; m = 1 end
end
print(k)
