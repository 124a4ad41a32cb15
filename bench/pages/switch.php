<?php
// `switch` on texts
$turns = 200000;
$name = labelled('delta');
for ($i = 0; $i < $turns; $i++) {
    switch ($name) {
        case 'alpha': $n = 1; break;
        case 'beta': $n = 2; break;
        case 'gamma': $n = 3; break;
        case 'delta': $n = 4; break;
        default: $n = 0;
    }
}
echo $n;
