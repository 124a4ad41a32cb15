<?php
// `md5` of 1 MB
$turns = 20;
$text = str_repeat(labelled('abcdefghij'), 100000);
for ($i = 0; $i < $turns; $i++) { $digest = md5($text); }
echo $digest;
