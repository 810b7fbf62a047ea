"""A script that has every form of the language."""

SCRIPT = """type sale = {shop: text, cents: int, paid: bool}
type both = table<text, {left: list<int>, right: list<either<int, text>>}>
input sales: sale from "a.csv"
input more: sale from "b.csv"
fn by_shop(s: sale) -> table<text, int> scale 50 {
  if s.paid and not (s.cents < 0) or s.shop == "none" {
    emit {key: s.shop, value: s.cents * 2 + 1}
  } else {
    let half = -s.cents / 2 % 7
    for word in words(concat(s.shop, text(half))) { emit {key: word, value: number("7")} }
  }
}
fn sides(s: sale) -> table<text, either<int, text>> {
  emit {key: s.shop, value: pick(s.paid, left<text>(s.cents), right<int>(s.shop))}
}
fn told(b: both) -> text {
  for side in b.value.right {
    case side left n { emit text(n + len(b.value.left)) } right t { emit concat(t, b.key) }
  }
  for n in concat([1, 2], empty<int>) { emit text([n, 3][0]) }
}
fn parted(s: sale) -> table<text, int>, text scale 20 {
  if s.paid { emit {key: s.shop, value: s.cents} } else { emit to 2 s.shop }
}
fn amount(s: sale) -> int { emit s.cents }
fn width(ends: {low: int, high: int}) -> int { emit ends.high - ends.low }
fn placed(it: {sale: sale, width: int}) -> text { emit text(it.sale.cents * it.width) }
let every = flatten sales, more, more
let pairs = do every by_shop
let groups = group pairs
let sums = combine groups by sum
output sums to "sums.csv"
let least = combine groups by min
let most = combine groups by max
let means = combine groups by mean
let three = combine groups by top 3
let kinds = combine groups by distinct
let seen = count sales
let first = top 10 every
let sided = do every sides
let matched = join pairs, sided
let names = do matched told
let taken, owing = do sales parted
let debts = count owing
let amounts = do every amount
let low = combineall amounts by min
let high = combineall amounts by max
let great = combineall amounts by top 3
let width = operate low, high by width
let places = do every placed with width
let near, far = repeat 3 from pairs, pairs as here, there {
  let size = combineall here by count
  let ways = flatten here, there
  give there, ways
}
output names to "names.csv"
"""
