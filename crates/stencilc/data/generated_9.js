switch( (d,
  x = function x
  ( ) { function e ( ) {} {/* 
 */  if(function y (y){ const f = new new{ q : null . this. __proto__( { }??eval?? ~ 1_000(b[ false]
  >>>new x [a, x ]( d,of
)**g** c . q -- || ~ +b|| '' && // c ) }
this
|| e , 'use strict', g ) ,e) [ this] *=g ,'__proto__' : true, f} ( ) ( y )[ g]^= c; if ( null ) { } else ;;
  }){ };}; ;})=>{ ; ;; ;;} ){ }
