{ The philosophers of `philosophers.pp`, the third of whom takes the right fork first. So not all of them can hold one
  fork and wait for the other one: none of their operations is ever lost. }
object philosophers_fixed;
  { What each does, one thing after the other. }
  path 1:(left1; right1; done1) end;
  path 1:(left2; right2; done2) end;
  path 1:(right3; left3; done3) end;
  { Each fork: one holds it, from the start of his call for it until he is done. }
  path 1:((left1, right3); (done1, done3)) end;
  path 1:((left2, right1); (done2, done1)) end;
  path 1:((left3, right2); (done3, done2)) end;
  entry procedure left1; begin end;
  entry procedure right1; begin end;
  entry procedure done1; begin end;
  entry procedure left2; begin end;
  entry procedure right2; begin end;
  entry procedure done2; begin end;
  entry procedure left3; begin end;
  entry procedure right3; begin end;
  entry procedure done3; begin end;
end;
