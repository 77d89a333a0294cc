 ;; -- nothing;
	;