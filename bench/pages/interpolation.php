<?php
// interpolation
$turns = 150000;
$name = labelled('world');
for ($i = 0; $i < $turns; $i++) { $text = "hello $name number $i"; }
echo $text;
