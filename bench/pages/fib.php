<?php
// fib(15)
$turns = 150;
function fib($n) { return $n < 2 ? $n : fib($n - 1) + fib($n - 2); }
for ($i = 0; $i < $turns; $i++) { $n = fib(15); }
echo $n;
