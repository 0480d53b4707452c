throw
;