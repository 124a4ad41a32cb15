<?php
// an integer loop
$turns = 500000;
$sum = 0;
for ($i = 0; $i < $turns; $i++) { $sum = $sum + $i * 2 % 7; }
echo $sum;
