<?php
// `htmlspecialchars` of 15 bytes
$turns = 200000;
$text = labelled('<b>hi</b> & bye');
for ($i = 0; $i < $turns; $i++) { $escaped = htmlspecialchars($text); }
echo $escaped;
