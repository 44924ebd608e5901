$ ls	
Bank
Work/
Nothing in it/
Bin/
$ ls	-R	
Bank
Work/
  Mél – 邮件
  Größere Kunden/
    Portal
Nothing in it/
Bin/
  Old
$ ls	-R	-f	
Bank
Work/
Work/Mél – 邮件
Work/Größere Kunden/
Work/Größere Kunden/Portal
Nothing in it/
Bin/
Bin/Old
$ ls	-f	
Bank
Work/
Nothing in it/
Bin/
$ ls	Work
Mél – 邮件
Größere Kunden/
$ ls	-R	Work
Mél – 邮件
Größere Kunden/
  Portal
$ ls	-R	-f	Work
Mél – 邮件
Größere Kunden/
Größere Kunden/Portal
$ ls	-f	Work
Mél – 邮件
Größere Kunden/
