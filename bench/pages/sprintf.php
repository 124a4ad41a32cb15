<?php
// `sprintf`
$turns = 100000;
$name = labelled('abc');
for ($i = 0; $i < $turns; $i++) { $text = sprintf('%05d %s', $i, $name); }
echo $text;
