-- A batch of the ledger in Redis, for bench/databases: KEYS are the hashes of accounts and of assets, which have a field for each id whose value is
-- not 0. ARGV has the events by rising timestamp: D ts acct asset a b, or X ts src dst asrc adst a b. The answer has their lines.
--
-- Numbers are doubles here, which are exact up to 2^53. They are written by format, since tostring would round what has more than 14 digits.
local accounts, assets = KEYS[1], KEYS[2]
local greatest = 1000000000000
local call, number, format = redis.call, tonumber, string.format

local function deposit(at)
    local account, asset = ARGV[at + 2], ARGV[at + 3]
    local money = number(call('HGET', accounts, account) or 0) + number(ARGV[at + 4])
    local things = number(call('HGET', assets, asset) or 0) + number(ARGV[at + 5])
    if money > greatest or things > greatest then
        return format('%s A\n', ARGV[at + 1])
    end
    call('HSET', accounts, account, format('%.0f', money))
    call('HSET', assets, asset, format('%.0f', things))
    return format('%s C %.0f %.0f\n', ARGV[at + 1], money, things)
end

local function transfer(at)
    local src, dst, asrc, adst = ARGV[at + 2], ARGV[at + 3], ARGV[at + 4], ARGV[at + 5]
    local a, b = number(ARGV[at + 6]), number(ARGV[at + 7])
    local money = call('HMGET', accounts, src, dst)
    local things = call('HMGET', assets, asrc, adst)
    local money_here, money_there = number(money[1] or 0) - a, number(money[2] or 0) + a
    local things_here, things_there = number(things[1] or 0) - b, number(things[2] or 0) + b
    if money_here < 0 or things_here < 0 or money_there > greatest or things_there > greatest then
        return format('%s A\n', ARGV[at + 1])
    end
    call('HSET', accounts, src, format('%.0f', money_here), dst, format('%.0f', money_there))
    call('HSET', assets, asrc, format('%.0f', things_here), adst, format('%.0f', things_there))
    return format('%s C %.0f %.0f %.0f %.0f\n', ARGV[at + 1], money_here, things_here, money_there, things_there)
end

local lines, at = {}, 1
while at <= #ARGV do
    if ARGV[at] == 'D' then
        lines[#lines + 1] = deposit(at)
        at = at + 6
    else
        lines[#lines + 1] = transfer(at)
        at = at + 8
    end
end
return table.concat(lines)
