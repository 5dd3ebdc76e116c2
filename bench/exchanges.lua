-- What `wrk` asks for bench/exchanges.py. Its words are the kind, the prefix of the callers' names, how many keys there
-- are at first, a date, and the step by which keys come out of their order; each thread is a caller. The last line of
-- what it writes has the exchanges that got their reply, the microseconds, and how many failed or had another status.
local kind, caller, keys, later, step, number
local threads = 0
local get = "GET /keys/%.0f HTTP/1.1\r\nHost: localhost\r\n\r\n"
local post = "POST /requests HTTP/1.1\r\nHost: localhost\r\nCaller: %s\r\nRequest-Number: %.0f\r\n"
    .. "Content-Length: %.0f\r\n\r\n%s"
local value = '{"kind":"register","type":"data-encryption","owner":"office","activation":%.0f,"protect_stop":%.0f,'
    .. '"deactivation":%.0f,"purpose":"backup volume %.0f"}'

function setup(thread)
    threads = threads + 1
    thread:set("place", threads)
end

function init(words)
    kind, caller, keys, later, step = words[1], words[2] .. "-" .. place, words[3] + 0, words[4] + 0, words[5] + 0
    number = 100000 * place
end

function request()
    number = number + 1
    if kind == "get" then
        return get:format(1 + number * step % keys)
    end
    local body = value:format(later - 1 - number * step % 1000000, later + 1, later + 2, number)
    return post:format(caller, number, #body, body)
end

function done(summary)
    local errors = summary.errors
    local failed = errors.connect + errors.read + errors.write + errors.timeout + errors.status
    io.write(("%d %d %d\n"):format(summary.requests, summary.duration, failed))
end
