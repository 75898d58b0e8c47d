$c k $.

  $c l
