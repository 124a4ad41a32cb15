<?php
// reading by a text key
$turns = 300000;
$table = ['one' => 1, 'two' => 2, 'three' => 3];
$key = labelled('two');
$sum = 0;
for ($i = 0; $i < $turns; $i++) { $sum = $sum + $table[$key]; }
echo $sum;
