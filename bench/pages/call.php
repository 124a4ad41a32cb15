<?php
// calls with three arguments
$turns = 200000;
function total($a, $b, $c) { return $a + $b + $c; }
for ($i = 0; $i < $turns; $i++) { $sum = total($i, 2, 3); }
echo $sum;
