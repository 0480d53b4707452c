if( a (false . class ).p /= [
(
)=> (this .let<<={prototype : ~ f -- || ~ function c(c ,
  x =(
y ={ }(y %= b ,new function e ( y ) {}
  (this
  ) .a (delete this)??undefined?? 0X1f ?x:x ,e )[x ," "]++, a)/* c */=>
  f ){ }. a -- && "use strict", } ) , ] )throw null