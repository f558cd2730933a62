// The five works of tools/bench in JavaScript. The script puts `var work = "..", calls = ..;` before this text.
var works = {};

works.twice = function (coil, outside, room, target, hours, power, flow, back) {
  function double(f) { return function (x) { return f(f(x)); }; }
  return double(double(double(double(double(double(double(double(double(double(double(double(double(double(function (y) { return y + 1; }))))))))))))))(0);
};

works.rule = function (coil, outside, room, target, hours, power, flow, back) {
  var low = outside <= -50 ? 320 : outside <= 0 ? 280 : 250;
  var want = room + 10 <= target ? low + 40 : target + 10 <= room ? 200 : low;
  function clamp(x) { return 450 <= x ? 450 : x <= 180 ? 180 : x; }
  return 80 <= coil ? clamp(want + power) : hours <= 3 ? clamp(want + back) : want;
};

works.deep = function (coil, outside, room, target, hours, power, flow, back) {
  var a0 = coil + 0;
  var a1 = outside + 1;
  var a2 = room + 2;
  var a3 = target + 3;
  var a4 = hours + 4;
  var a5 = power + 5;
  var a6 = flow + 6;
  var a7 = back + 7;
  var a8 = coil + 8;
  var a9 = outside + 9;
  var a10 = a0 + 1;
  var a11 = a1 + 1;
  var a12 = a2 + 1;
  var a13 = a3 + 1;
  var a14 = a4 + 1;
  var a15 = a5 + 1;
  var a16 = a6 + 1;
  var a17 = a7 + 1;
  var a18 = a8 + 1;
  var a19 = a9 + 1;
  var a20 = a10 + 1;
  var a21 = a11 + 1;
  var a22 = a12 + 1;
  var a23 = a13 + 1;
  var a24 = a14 + 1;
  var a25 = a15 + 1;
  var a26 = a16 + 1;
  var a27 = a17 + 1;
  var a28 = a18 + 1;
  var a29 = a19 + 1;
  var a30 = a20 + 1;
  var a31 = a21 + 1;
  var a32 = a22 + 1;
  var a33 = a23 + 1;
  var a34 = a24 + 1;
  var a35 = a25 + 1;
  var a36 = a26 + 1;
  var a37 = a27 + 1;
  var a38 = a28 + 1;
  var a39 = a29 + 1;
  var a40 = a30 + 1;
  var a41 = a31 + 1;
  var a42 = a32 + 1;
  var a43 = a33 + 1;
  var a44 = a34 + 1;
  var a45 = a35 + 1;
  var a46 = a36 + 1;
  var a47 = a37 + 1;
  var a48 = a38 + 1;
  var a49 = a39 + 1;
  var a50 = a40 + 1;
  var a51 = a41 + 1;
  var a52 = a42 + 1;
  var a53 = a43 + 1;
  var a54 = a44 + 1;
  var a55 = a45 + 1;
  var a56 = a46 + 1;
  var a57 = a47 + 1;
  var a58 = a48 + 1;
  var a59 = a49 + 1;
  function g(p) {
return p + a0 + a1 + a2 + a3 + a4 + a5 + a6 + a7 + a8 + a9 + a10 + a11 + a12 + a13 + a14 + a15 + a16 + a17 +
      a18 + a19 + a20 + a21 + a22 + a23 + a24 + a25 + a26 + a27 + a28 + a29 + a30 + a31 + a32 + a33 + a34 +
      a35 + a36 + a37 + a38 + a39 + a40 + a41 + a42 + a43 + a44 + a45 + a46 + a47 + a48 + a49;
  }
  return g(coil) + g(room);
};

works.arith = function (coil, outside, room, target, hours, power, flow, back) {
var first = (((((outside + 14) + (target + 28)) + ((power + 42) + (back + 56))) + (((outside + 70) + (target +
    84)) + ((power + 98) + (back + 112)))) + ((((outside + 126) + (target + 140)) + ((power + 154) + (back +
    168))) + (((outside + 182) + (target + 196)) + ((power + 210) + (back + 224))))) + (((((outside + 238) +
    (target + 252)) + ((power + 266) + (back + 280))) + (((outside + 294) + (target + 308)) + ((power + 322) +
    (back + 336)))) + ((((outside + 350) + (target + 364)) + ((power + 378) + (back + 392))) + (((outside +
    406) + (target + 420)) + ((power + 434) + (back + 448)))))
<= (((((outside + 462) + (target + 476)) + ((power + 490) + (back + 504))) + (((outside + 518) + (target +
    532)) + ((power + 546) + (back + 560)))) + ((((outside + 574) + (target + 588)) + ((power + 602) + (back +
    616))) + (((outside + 630) + (target + 644)) + ((power + 658) + (back + 672))))) + (((((outside + 686) +
    (target + 700)) + ((power + 714) + (back + 728))) + (((outside + 742) + (target + 756)) + ((power + 770) +
    (back + 784)))) + ((((outside + 798) + (target + 812)) + ((power + 826) + (back + 840))) + (((outside +
    854) + (target + 868)) + ((power + 882) + (back + 896)))))
    ? 5 + coil : room + 7;
var last = (((outside + 134) + (target + 148)) + ((power + 162) + (back + 176))) + (((outside + 190) + (target
    + 204)) + ((power + 218) + (back + 232))) <= 2000 ? 1 : 2;
return first + (((((outside + 910) + (target + 924)) + ((power + 938) + (back + 952))) + (((outside + 966) +
    (target + 980)) + ((power + 994) + (back + 8)))) + ((((outside + 22) + (target + 36)) + ((power + 50) +
    (back + 64))) + (((outside + 78) + (target + 92)) + ((power + 106) + (back + 120)))) + last);
};

works.church = function (coil, outside, room, target, hours, power, flow, back) {
  function three(f) { return function (x) { return f(f(f(x))); }; }
  function add(m) {
    return function (n) { return function (f) { return function (x) { return m(f)(n(f)(x)); }; }; };
  }
  function times(m) { return function (n) { return function (f) { return m(n(f)); }; }; }
  var six = add(three)(three), nine = times(three)(three);
  return times(times(nine)(six))(add(nine)(times(six)(six)))(function (y) { return y + 1; })(hours);
};

// The readings of 64 calls: numbers of -100 to 399, the hours 0 to 9.
var sets = [], seed = 1;
for (var call = 0; call < 64; call++) {
  var set = [];
  for (var place = 0; place < 8; place++) {
    seed = (seed * 1103 + 12345) % 65536;
    set.push(place === 4 ? seed % 10 : seed % 500 - 100);
  }
  sets.push(set);
}

function all(f) {
  var sum = 0;
  for (var call = 0; call < calls; call++) {
    var s = sets[call % 64];
    sum = sum + f(s[0], s[1], s[2], s[3], s[4], s[5], s[6], s[7]);
  }
  return sum;
}
print(all(works[work]));
