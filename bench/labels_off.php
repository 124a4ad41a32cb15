<?php
function labelled($text) { return $text; }
