<?php
// methods
$turns = 200000;
class Counter {
    public $sum = 0;
    function add($n) { $this->sum = $this->sum + $n; return $this->sum; }
}
$counter = new Counter();
for ($i = 0; $i < $turns; $i++) { $sum = $counter->add($i); }
echo $sum;
