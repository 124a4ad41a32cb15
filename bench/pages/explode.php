<?php
// `explode` and `implode` of five words
$turns = 50000;
$words = labelled('a bb ccc dddd eeeee');
for ($i = 0; $i < $turns; $i++) { $text = implode(',', explode(' ', $words)); }
echo $text;
