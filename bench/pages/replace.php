<?php
// `str_replace` in 1 MB
$turns = 20;
$text = str_repeat(labelled('abcdefghij'), 100000);
for ($i = 0; $i < $turns; $i++) { $replaced = str_replace('de', 'xyz', $text); }
echo strlen($replaced), substr($replaced, -11);
