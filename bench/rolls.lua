-- The deliveries of requests.lua, of which only the longest wait is told: waits of seconds have too many values to be told one by
-- one.
dofile(debug.getinfo(1, "S").source:match("^@(.*/)") .. "requests.lua")

function done(summary, latency)
    print("run " .. summary.duration .. " " .. summary.requests .. " " .. latency.max)
end
