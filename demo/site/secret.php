<?php
// A marked byte does not leave: the answer is 500, and the log names the policy and the bytes.
echo 'a' . policy_add('secret', new NoExport()) . 'b';
