<?php
// `.=` of 10 bytes
$turns = 40000;
$text = '';
$part = labelled('abcdefghij');
for ($i = 0; $i < $turns; $i++) { $text .= $part; }
echo strlen($text), substr($text, -10);
