$ ls	
Bank
Mél – 邮件
Familie & Freunde/
Nothing in it/
邮件 🔑/
$ ls	-R	
Bank
Mél – 邮件
Familie & Freunde/
  Tom & "Jerry" <cats>
  Schule – écoles/
    Vereine/
        spaces round it  
Nothing in it/
邮件 🔑/
$ ls	-R	-f	
Bank
Mél – 邮件
Familie & Freunde/
Familie & Freunde/Tom & "Jerry" <cats>
Familie & Freunde/Schule – écoles/
Familie & Freunde/Schule – écoles/Vereine/
Familie & Freunde/Schule – écoles/Vereine/  spaces round it  
Nothing in it/
邮件 🔑/
$ ls	-f	
Bank
Mél – 邮件
Familie & Freunde/
Nothing in it/
邮件 🔑/
$ ls	Familie & Freunde
Tom & "Jerry" <cats>
Schule – écoles/
$ ls	-R	Familie & Freunde
Tom & "Jerry" <cats>
Schule – écoles/
  Vereine/
      spaces round it  
$ ls	-R	-f	Familie & Freunde
Tom & "Jerry" <cats>
Schule – écoles/
Schule – écoles/Vereine/
Schule – écoles/Vereine/  spaces round it  
$ ls	-f	Familie & Freunde
Tom & "Jerry" <cats>
Schule – écoles/
