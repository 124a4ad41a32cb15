<?php
// Texts of 100,000 bytes, of which every second one carries a policy.
$turns = 5;
$pair = policy_add('a', new Policy()) . 'b';
for ($i = 0; $i < $turns; $i++) { $texts[] = str_repeat($pair, 50000); }
echo count($texts);
