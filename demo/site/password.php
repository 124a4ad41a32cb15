<?php
// PasswordPolicy stands in boot.php: the mail to the owner leaves, and the page is denied.
$w = policy_add('pw', new PasswordPolicy('u@foo.com'));
mail('u@foo.com', 's', $w);
echo $w;
