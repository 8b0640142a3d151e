-- Deliveries for `wrk`, or asks. The arguments are how many branches and articles there are, from which each request takes
-- random ones; `random` or `ordered`, for the keys of deliveries, or `none`, and then it asks for fields; and a user's header, if
-- there is one. At the end it prints the microseconds of the run, how many requests were answered, and each wait in microseconds
-- with how many requests waited so long.
local thread = 0

function setup(started)
    started:set("number", thread)
    thread = thread + 1
end

function init(arguments)
    branches, articles, keys = tonumber(arguments[1]), tonumber(arguments[2]), arguments[3]
    sent = 0
    -- where one front has several desks, the address has the desk's name
    prefix = wrk.path:gsub("/$", "")
    wrk.headers["Authorization"] = arguments[4]
    math.randomseed(os.time() + 1000000000 * number)
end

local function key()
    if keys == "random" then
        return math.random(9000000000000000)
    end
    sent = sent + 1
    return 1000000000000 * (number + 1) + sent
end

function request()
    local branch, article = math.random(branches) - 1, math.random(articles) - 1
    if keys == "none" then
        return wrk.format("GET", string.format("%s/v1/fields/N%d/A-%d", prefix, branch, article))
    end
    local body = string.format('{"key":"K-%d","command":"deliver N%d A-%d 1"}', key(), branch, article)
    return wrk.format("POST", prefix .. "/v1/commands", nil, body)
end

function done(summary, latency)
    print("run " .. summary.duration .. " " .. summary.requests)
    for place = 1, #latency do
        local micros, count = latency(place)
        print("wait " .. micros .. " " .. tonumber(count))
    end
end
