<?php
// `$list[] = $i`
$turns = 300000;
$list = [];
for ($i = 0; $i < $turns; $i++) { $list[] = $i; }
echo count($list), $list[$turns - 1];
