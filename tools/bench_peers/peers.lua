-- The five works of tools/bench in Lua: lua5.4 peers.lua WORK CALLS
local works = {}

function works.twice(coil, outside, room, target, hours, power, flow, back)
  local function double(f) return function(x) return f(f(x)) end end
  return double(double(double(double(double(double(double(double(double(double(double(double(double(double(function(y) return y + 1 end))))))))))))))(0)
end

function works.rule(coil, outside, room, target, hours, power, flow, back)
  local low
  if outside <= -50 then low = 320 elseif outside <= 0 then low = 280 else low = 250 end
  local want
  if room + 10 <= target then want = low + 40 elseif target + 10 <= room then want = 200 else want = low end
  local function clamp(x)
    if 450 <= x then return 450 elseif x <= 180 then return 180 else return x end
  end
  if 80 <= coil then return clamp(want + power) elseif hours <= 3 then return clamp(want + back) else return want end
end

function works.deep(coil, outside, room, target, hours, power, flow, back)
  local a0 = coil + 0
  local a1 = outside + 1
  local a2 = room + 2
  local a3 = target + 3
  local a4 = hours + 4
  local a5 = power + 5
  local a6 = flow + 6
  local a7 = back + 7
  local a8 = coil + 8
  local a9 = outside + 9
  local a10 = a0 + 1
  local a11 = a1 + 1
  local a12 = a2 + 1
  local a13 = a3 + 1
  local a14 = a4 + 1
  local a15 = a5 + 1
  local a16 = a6 + 1
  local a17 = a7 + 1
  local a18 = a8 + 1
  local a19 = a9 + 1
  local a20 = a10 + 1
  local a21 = a11 + 1
  local a22 = a12 + 1
  local a23 = a13 + 1
  local a24 = a14 + 1
  local a25 = a15 + 1
  local a26 = a16 + 1
  local a27 = a17 + 1
  local a28 = a18 + 1
  local a29 = a19 + 1
  local a30 = a20 + 1
  local a31 = a21 + 1
  local a32 = a22 + 1
  local a33 = a23 + 1
  local a34 = a24 + 1
  local a35 = a25 + 1
  local a36 = a26 + 1
  local a37 = a27 + 1
  local a38 = a28 + 1
  local a39 = a29 + 1
  local a40 = a30 + 1
  local a41 = a31 + 1
  local a42 = a32 + 1
  local a43 = a33 + 1
  local a44 = a34 + 1
  local a45 = a35 + 1
  local a46 = a36 + 1
  local a47 = a37 + 1
  local a48 = a38 + 1
  local a49 = a39 + 1
  local a50 = a40 + 1
  local a51 = a41 + 1
  local a52 = a42 + 1
  local a53 = a43 + 1
  local a54 = a44 + 1
  local a55 = a45 + 1
  local a56 = a46 + 1
  local a57 = a47 + 1
  local a58 = a48 + 1
  local a59 = a49 + 1
  local function g(p)
return p + a0 + a1 + a2 + a3 + a4 + a5 + a6 + a7 + a8 + a9 + a10 + a11 + a12 + a13 + a14 + a15 + a16 + a17 +
      a18 + a19 + a20 + a21 + a22 + a23 + a24 + a25 + a26 + a27 + a28 + a29 + a30 + a31 + a32 + a33 + a34 +
      a35 + a36 + a37 + a38 + a39 + a40 + a41 + a42 + a43 + a44 + a45 + a46 + a47 + a48 + a49
  end
  return g(coil) + g(room)
end

function works.arith(coil, outside, room, target, hours, power, flow, back)
  local first, last
if (((((outside + 14) + (target + 28)) + ((power + 42) + (back + 56))) + (((outside + 70) + (target + 84)) +
    ((power + 98) + (back + 112)))) + ((((outside + 126) + (target + 140)) + ((power + 154) + (back + 168))) +
    (((outside + 182) + (target + 196)) + ((power + 210) + (back + 224))))) + (((((outside + 238) + (target +
    252)) + ((power + 266) + (back + 280))) + (((outside + 294) + (target + 308)) + ((power + 322) + (back +
    336)))) + ((((outside + 350) + (target + 364)) + ((power + 378) + (back + 392))) + (((outside + 406) +
    (target + 420)) + ((power + 434) + (back + 448)))))
<= (((((outside + 462) + (target + 476)) + ((power + 490) + (back + 504))) + (((outside + 518) + (target +
    532)) + ((power + 546) + (back + 560)))) + ((((outside + 574) + (target + 588)) + ((power + 602) + (back +
    616))) + (((outside + 630) + (target + 644)) + ((power + 658) + (back + 672))))) + (((((outside + 686) +
    (target + 700)) + ((power + 714) + (back + 728))) + (((outside + 742) + (target + 756)) + ((power + 770) +
    (back + 784)))) + ((((outside + 798) + (target + 812)) + ((power + 826) + (back + 840))) + (((outside +
    854) + (target + 868)) + ((power + 882) + (back + 896)))))
  then first = 5 + coil else first = room + 7 end
if (((outside + 134) + (target + 148)) + ((power + 162) + (back + 176))) + (((outside + 190) + (target + 204))
    + ((power + 218) + (back + 232))) <= 2000
  then last = 1 else last = 2 end
return first + (((((outside + 910) + (target + 924)) + ((power + 938) + (back + 952))) + (((outside + 966) +
    (target + 980)) + ((power + 994) + (back + 8)))) + ((((outside + 22) + (target + 36)) + ((power + 50) +
    (back + 64))) + (((outside + 78) + (target + 92)) + ((power + 106) + (back + 120)))) + last)
end

function works.church(coil, outside, room, target, hours, power, flow, back)
  local function three(f) return function(x) return f(f(f(x))) end end
  local function add(m) return function(n) return function(f) return function(x) return m(f)(n(f)(x)) end end end end
  local function times(m) return function(n) return function(f) return m(n(f)) end end end
  local six = add(three)(three)
  local nine = times(three)(three)
  return times(times(nine)(six))(add(nine)(times(six)(six)))(function(y) return y + 1 end)(hours)
end

-- The readings of 64 calls: numbers of -100 to 399, the hours 0 to 9.
local sets, seed = {}, 1
for call = 1, 64 do
  local set = {}
  for place = 1, 8 do
    seed = (seed * 1103 + 12345) % 65536
    set[place] = place == 5 and seed % 10 or seed % 500 - 100
  end
  sets[call] = set
end

local work, calls = works[arg[1]], tonumber(arg[2])
local sum = 0
for call = 0, calls - 1 do
  local s = sets[call % 64 + 1]
  sum = sum + work(s[1], s[2], s[3], s[4], s[5], s[6], s[7], s[8])
end
print(string.format("%d", sum))
