<?php
// `foreach` over 1,000 entries
$turns = 300;
$list = explode('a', str_repeat('a', 999));
$sum = 0;
for ($i = 0; $i < $turns; $i++) {
    foreach ($list as $key => $value) { $sum += $key; }
}
echo $sum;
