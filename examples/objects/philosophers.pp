{ Three philosophers at a round table, with a fork between each two. Each takes the left fork first, so that all of them
  can hold one and wait for the other one: `pathserve check --stuck` says it. }
object philosophers;
  { What each does, one thing after the other. }
  path 1:(left1; right1; done1) end;
  path 1:(left2; right2; done2) end;
  path 1:(left3; right3; done3) end;
  { Each fork: one holds it, from the start of his call for it until he is done. }
  path 1:((left1, right3); (done1, done3)) end;
  path 1:((left2, right1); (done2, done1)) end;
  path 1:((left3, right2); (done3, done2)) end;
  entry procedure left1; begin end;
  entry procedure right1; begin end;
  entry procedure done1; begin end;
  entry procedure left2; begin end;
  entry procedure right2; begin end;
  entry procedure done2; begin end;
  entry procedure left3; begin end;
  entry procedure right3; begin end;
  entry procedure done3; begin end;
end;
