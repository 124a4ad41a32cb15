<?php
function labelled($text) { return policy_add($text, new Policy()); }
