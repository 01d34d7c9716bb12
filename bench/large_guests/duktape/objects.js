// Objects, prototypes, closures, arrays, JSON, regular expressions and numbers.
function fib(n) { return n < 2 ? n : fib(n - 1) + fib(n - 2); }
print('fib', fib(12));

function Tree() { this.root = null; this.count = 0; }
Tree.prototype.insert = function (key) {
    var at = this.root, node = { key: key, left: null, right: null };
    if (!at) { this.root = node; this.count = 1; return; }
    for (;;) {
        if (key === at.key) return;
        var side = key < at.key ? 'left' : 'right';
        if (!at[side]) { at[side] = node; this.count++; return; }
        at = at[side];
    }
};
Tree.prototype.walk = function (f) {
    (function go(node) { if (node) { go(node.left); f(node.key); go(node.right); } })(this.root);
};
var tree = new Tree(), state = 42, sum = 0, last = -1, sorted = true;
for (var i = 0; i < 120; i++) {
    state = (state * 1103515245 + 12345) % 2147483648;
    tree.insert(Math.floor(state / 65536) % 1000);
}
tree.walk(function (key) { sum += key; if (key < last) sorted = false; last = key; });
print(tree.count, sum, sorted);

var list = [];
for (i = 0; i < 100; i++) list.push((i * 7919) % 1009);
print(list.slice().sort(function (a, b) { return a - b; }).slice(0, 10).join(), list.filter(function (x) { return x % 7 === 0; }).length);
print(list.map(function (x) { return x / 8; }).reduce(function (a, b) { return a + b; }, 0));

var text = JSON.stringify({ a: [1, 2.5, null, true], b: { c: 'x\n"y"' }, list: list.slice(0, 5) });
print(text, JSON.stringify(JSON.parse(text)) === text);
print('The machine has 80386 instructions, and 7 results'.replace(/(\w+) (\d+)/g, '$2 $1'), /(\d+)$/.exec('abc 123')[1]);
print(0.1 + 0.2, 1 / 3, 1e21, -0, 5e-324, 1.7976931348623157e308, (255).toString(16), (3.14159).toFixed(2), parseInt('7f', 16), parseFloat('2.5e3x'));
print([1, 2, 3].concat([4]).reverse(), 'abc'.charCodeAt(1), encodeURIComponent('a b&c'), typeof undefined, NaN === NaN);
try { null.x; } catch (e) { print(e.name); }
print(Math.max(1, 2, 3), Math.round(2.5), Math.sqrt(2), Math.pow(2, 0.5).toFixed(12));
