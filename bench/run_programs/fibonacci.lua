local jfib
local function ifib(n) if n < 2 then return n else return jfib(n-1)+jfib(n-2) end end
function jfib(n) if n < 2 then return n else return ifib(n-1)+ifib(n-2) end end
print(ifib(@N))
