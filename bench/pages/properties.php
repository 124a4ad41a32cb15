<?php
// properties
$turns = 300000;
class Point { public $x = 1; public $y = 2; }
$point = new Point();
for ($i = 0; $i < $turns; $i++) { $point->x = $point->y + $i; }
echo $point->x;
