debugger
({ in : 2 ( ) .new= x = `${ 127 ** 2 !== ++ `\${`. let && ( {__proto__, a:( b=>b&{__proto__: + 0o17 ,get :aa , __proto__}??a --)[g . this ** `😀` ] ,get: ( d , f = 256,...x ) => {y; function e(b){ const f = e; null // c ) }
{ function été()
  {/* c */for ( var c in null )continue;function a ( ){true
function été (d) { } } function g( ...c) { ; ; };;}} } }} )|| "p" && !x }
` })