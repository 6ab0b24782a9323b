a
 	b