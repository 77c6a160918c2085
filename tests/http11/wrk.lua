-- Asks for the message of a number, each thread and connection another, and compares what comes.
local counter, thread = 0, 0
function setup(t) t:set("id", thread); thread = thread + 1 end
function init() counter = id * 1000000 end
local function message(id, number)
  local out = { string.char(0, 0, 0, 0, id) }
  local n = number * 2
  while n > 127 do
    out[#out + 1] = string.char(n % 128 + 128)
    n = math.floor(n / 128)
  end
  out[#out + 1] = string.char(n)
  return table.concat(out)
end
function request()
  counter = counter + 1
  return wrk.format("POST", "/transcode/2", { ["X-Number"] = tostring(counter) }, message(1, counter))
end
-- answers of one thread come from several connections, so that each is only known to be one that was asked for
function response(status, headers, body)
  if status ~= 200 or string.sub(body, 1, 5) ~= string.char(0, 0, 0, 0, 2) then io.write("problem ", status, "\n") end
end
