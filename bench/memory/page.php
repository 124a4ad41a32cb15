<?php
echo str_repeat('0123456789', 1000000);
