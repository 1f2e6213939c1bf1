-- The requests that clients/rate.py has wrk make, a function for each kind of them, and what is wanted of their replies.
-- Usage: wrk .. -s clients/rate.lua http://127.0.0.1:PORT -- PATH KIND QUEUE TEXT DIGEST [SECONDS]
--
-- QUEUE is the queue's URL, TEXT the body of each message, DIGEST its MD5, which each reply to a send or a receive has to have, and SECONDS
-- the delay of a send or the wait of a receive. Requests go to PATH and the name of their action, by which nginx chooses its reply, or where
-- PATH is / to that alone. No request is sent before the one before it on its connection was answered.

local threads = {}
local kinds = {}
local next_request, is_wanted, wanted_status

-- What one thread of wrk has found: replies that were not as wanted, the first of them, replies with messages, and those with too few.
wrong, example, offers, short = 0, "", 0, 0

-- Returns the bytes of a request that stand before the length of its body.
local function head_of(path, action)
   local lines = {string.format("POST %s HTTP/1.1", path == "/" and path or path .. action), "X-Amz-Target: AmazonSQS." .. action}
   lines[3] = "Content-Type: application/x-amz-json-1.0"
   for name, value in pairs(wrk.headers) do
      lines[#lines + 1] = name .. ": " .. value
   end
   return table.concat(lines, "\r\n") .. "\r\nContent-Length: "
end

-- Returns the bytes of a request for an action.
local function call(path, action, body)
   return head_of(path, action) .. #body .. "\r\n\r\n" .. body
end

local function has(text, part)
   return string.find(text, part, 1, true) ~= nil
end

-- One message a request.
function kinds.send(path, queue, text, digest, seconds)
   local body = string.format('{"QueueUrl":"%s","MessageBody":"%s","DelaySeconds":%d}', queue, text, seconds)
   if seconds == 0 then
      body = string.format('{"QueueUrl":"%s","MessageBody":"%s"}', queue, text)
   end
   local asked = call(path, "SendMessage", body)
   return function() return asked end, function(reply) return has(reply, digest) end
end

-- A send with the header of a web page, which is refused by its head.
function kinds.page(path, queue, text)
   wrk.headers["Origin"] = "http://localhost"
   local asked = call(path, "SendMessage", string.format('{"QueueUrl":"%s","MessageBody":"%s"}', queue, text))
   return function() return asked end, function(reply) return has(reply, "requests of web pages are not answered") end, 403
end

-- Ten messages a request.
function kinds.batch(path, queue, text, digest)
   local entries = {}
   for id = 0, 9 do
      entries[#entries + 1] = string.format('{"Id":"%d","MessageBody":"%s"}', id, text)
   end
   local body = string.format('{"QueueUrl":"%s","Entries":[%s]}', queue, table.concat(entries, ","))
   local asked = call(path, "SendMessageBatch", body)
   return function() return asked end, function(reply)
      return has(reply, '"Failed":[]') and has(reply, '"Id":"9"') and has(reply, digest)
   end
end

-- A receive of one message, and behind its reply the delete of that message.
function kinds.receive(path, queue, _, digest, seconds)
   local wait = seconds == 0 and "" or string.format(',"WaitTimeSeconds":%d', seconds)
   local asked = call(path, "ReceiveMessage", string.format('{"QueueUrl":"%s"%s}', queue, wait))
   local before, behind = string.format('{"QueueUrl":"%s","ReceiptHandle":"', queue), '"}'
   local head = head_of(path, "DeleteMessage")
   local handles = {}
   return function()
      local handle = table.remove(handles)
      if not handle then
         return asked
      end
      return head .. #before + #handle + #behind .. "\r\n\r\n" .. before .. handle .. behind
   end, function(reply)
      local handle = string.match(reply, '"ReceiptHandle":"(%x+)"')
      if handle then
         offers = offers + 1
         handles[#handles + 1] = handle
         return has(reply, digest)
      end
      -- a delete, or a receive without a message: of these the server's statistics tell
      return reply == "{}"
   end
end

-- A receive of ten messages, and behind its reply a batch that deletes them.
function kinds.ten(path, queue, _, digest)
   local asked = call(path, "ReceiveMessage", string.format('{"QueueUrl":"%s","MaxNumberOfMessages":10}', queue))
   local head = head_of(path, "DeleteMessageBatch")
   local found = {}
   return function()
      local handles = table.remove(found)
      if not handles then
         return asked
      end
      local body = string.format('{"QueueUrl":"%s","Entries":[%s]}', queue, table.concat(handles, ","))
      return head .. #body .. "\r\n\r\n" .. body
   end, function(reply)
      local handles = {}
      for handle in string.gmatch(reply, '"ReceiptHandle":"(%x+)"') do
         handles[#handles + 1] = string.format('{"Id":"%d","ReceiptHandle":"%s"}', #handles, handle)
      end
      if #handles == 10 then
         offers = offers + 1
         found[#found + 1] = handles
         return has(reply, digest)
      end
      if #handles > 0 or reply == "{}" then
         short = short + 1
         return true
      end
      return has(reply, '"Failed":[]') and has(reply, '"Id":"9"')
   end
end

function setup(thread)
   threads[#threads + 1] = thread
end

function init(args)
   next_request, is_wanted, wanted_status = kinds[args[2]](args[1], args[3], args[4], args[5], tonumber(args[6] or 0))
end

function request()
   return next_request()
end

function response(status, _, body)
   if status ~= (wanted_status or 200) or not is_wanted(body) then
      wrong = wrong + 1
      example = example == "" and string.format("%d %s", status, string.sub(body, 1, 300)) or example
   end
end

-- Tells on lines of their own what clients/rate.py reads: times in microseconds.
function done(summary, latency)
   local errors = summary.errors
   local told = {
      requests = summary.requests, microseconds = summary.duration, p50 = latency:percentile(50), p99 = latency:percentile(99),
      failed = errors.connect + errors.read + errors.write + errors.timeout, wrong = 0, offers = 0, short = 0, example = ""
   }
   for _, thread in ipairs(threads) do
      for _, name in ipairs({"wrong", "offers", "short"}) do
         told[name] = told[name] + thread:get(name)
      end
      told.example = told.example == "" and thread:get("example") or told.example
   end
   for name, value in pairs(told) do
      io.write(string.format("told %s %s\n", name, value))
   end
end
