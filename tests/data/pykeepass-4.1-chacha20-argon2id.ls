$ ls	
Work/
Home – maison/
$ ls	-R	
Work/
  Bank
  Mél – 邮件
Home – maison/
  Moved/
    Left out of reports
$ ls	-R	-f	
Work/
Work/Bank
Work/Mél – 邮件
Home – maison/
Home – maison/Moved/
Home – maison/Moved/Left out of reports
$ ls	-f	
Work/
Home – maison/
$ ls	Work
Bank
Mél – 邮件
$ ls	-R	Work
Bank
Mél – 邮件
$ ls	-R	-f	Work
Bank
Mél – 邮件
$ ls	-f	Work
Bank
Mél – 邮件
$ ls	Home – maison
Moved/
$ ls	-R	Home – maison
Moved/
  Left out of reports
$ ls	-R	-f	Home – maison
Moved/
Moved/Left out of reports
$ ls	-f	Home – maison
Moved/
