"""English words and a text of them, made of stems with English prefixes and endings, so that
letters follow each other about as often as in English. Each run has the same words."""

from workloads import Dice, of_parts

# Short words, of which most of running English is made.
COMMON = ('the the the of of and and to to in in a a is it that for on with as was at by be this '
          'which or from are not an but they have had one all we can if so has more when its no '
          'their what up out there only into some than other then will now these two may like '
          'time no such each first over how after also her his she him them us me my our').split()

# Verbs and nouns from which others are made.
STEMS = (
    'act add adjust aim alarm align allot amend anchor answer appear argue arm arrest ask attack '
    'attend award back bag balance band bank bar bargain bark base beam bear beat bed begin bend '
    'bind bird bite blame blank blast blend bless block bloom board boast boil bolt bond book '
    'boot border borrow bother bound bowl brace branch brand break breath brick bridge brief '
    'bring broad brush build burn bus button buzz cable call camp cap care cart cast catch cause '
    'chain chair chalk chance change charm chart cheap check cheer chest chief child choke churn '
    'circle claim clap class clay clean clear clerk click cliff climb cloak clock cloth cloud '
    'club clutch coal coast cold collect comb comfort common compare comply concern connect '
    'consider contain cook copper copy cost cotton count court crack craft crash cream credit '
    'creep crew crop cross crowd crown crush cry cup current curtain cut damp dance danger dark '
    'dash deal deck deep defend deliver demand depend desert design desk detail develop differ '
    'dinner direct dirt discover dish display divide doctor double doubt draft drag drain draw '
    'dream dress drift drill drink drive drop drum dust early earn earth ease east edge edit '
    'effect effort elder elect empty end engine enjoy enter equal escape event exact exceed '
    'except expect expert explain extend eye face fact fail faint fair faith fall farm fast '
    'father favour fear feather feed feel fence fetch field fight figure fill film final find '
    'finger finish fire firm fish fit flag flame flash flat flesh flight float flood floor flour '
    'flow flower fold follow fool foot force forest form fort forward frame free fresh friend '
    'front frost fruit fuel full fund gain gallon garden gate gather gentle gift glad glass glow '
    'gold govern grace grain grand grant grass great green greet grey grip ground group grow '
    'guard guess guest guide habit hair half hall hammer hand hang happen harbour hard harm '
    'harvest head heal heap hear heart heat heaven height help herd hill hint hold hollow holy '
    'honest hope horn host hour house humour hunt hurry ice idle image inch insect inspect '
    'install invent invite iron island issue jewel join joint joke journal judge jump just keen '
    'keep kick kind king kiss knee knock knot label labour lack ladder lake lamp land large last '
    'late laugh launch law lay lead leaf lean learn leather lend lesson letter level library lift '
    'light limb limit line link list listen load loan lock log lone long look lord lose loud luck '
    'lunch machine mail main manage manner mark market master match matter meal mean measure meat '
    'medal meet melt member mend mercy metal mild milk mill mind mine minister mirror miss mist '
    'mix model modern moment monster moon moral mother motor mount mouth move muscle narrow '
    'nation nature neat neck need nerve nest nice night noise normal north note notice number '
    'nurse obey object observe offend offer office open order organ owner paint pair parcel park '
    'pass past patient pattern peace pen perform permit person phone pick picture piece pilot pin '
    'pipe place plain plan plant plate play please plot point poison pole polish poor port post '
    'pot pound powder power practice pray present prevent price print prison produce profit '
    'promise proof protect proud public pull pump punish pure push quality quarrel quarter queen '
    'quest quick quiet race rail rain raise range rank rapid rare reach read real reason record '
    'reform regard relax remain remark remind rent repair repeat report request respect rest '
    'result retain return reward rich ring rise risk river road roar rock roll roof room root '
    'rough round row royal rule rush sad safe sail salt sample sand save school scrap search seat '
    'secret seem sell sense settle shake share shelter shift ship shoot short show sick side '
    'sight sign silk silver simple sing sink sister skill slave slide slow smell smoke snow soft '
    'sort south spare speed spend split sport spread square stage stamp star state stay steel '
    'stem stick still stock stop storm strain stream stress strict string strong study style '
    'succeed sugar suit summer support surf sweep swell swing system table tail talk tall task '
    'taste teach team tear tell tempt tend tender tent term test thank theatre thick thin think '
    'thread threat thrill throat throw thunder ticket tie tight time tin tip tire title tooth top '
    'torch total touch tough tour towel tower town track trade trail train trap travel treat tree '
    'tremble trial tribe trick trouble true trunk trust tune turn twist type uncle under union '
    'unit upper urge use usual valley value vary vessel victor view village visit voice vote wage '
    'wake walk wander want warn wash watch water weak wealth wear weave weigh west wheel whisper '
    'whistle white wide wild will win wind window wine wing winter wire wise wish witness wonder '
    'wood wool work world worry worth wound wrap wreck write yard yellow yield young zeal zone'
).split()

PREFIXES = ('',) * 24 + ('un', 'out', 'over')
ENDINGS = ('', 's', 'ed', 'ing', 'er', 'ers', 'ly', 'ness', 'able', 'ful', 'less', 'ment', 'ish',
           'y', 'ings', 'fully')


def word(dice: Dice) -> str:
    """A word that is made from a stem."""
    return dice.one_of(PREFIXES) + dice.one_of(STEMS) + dice.one_of(ENDINGS)


def words(count: int) -> list[str]:
    """As many different words of four letters or more."""
    dice = Dice(9)
    found: dict[str, None] = {}
    while len(found) < count:
        one = word(dice)
        if len(one) >= 4:
            found[one] = None
    return list(found)


def sentence(dice: Dice) -> str:
    """Some words with a capital letter and a full stop, and perhaps a comma or a number."""
    chosen = [dice.one_of(COMMON) if dice.roll(10) < 7 else word(dice)
              for _ in range(6 + dice.roll(16))]
    at = dice.roll(len(chosen))
    if dice.roll(3) == 0:
        chosen[at] += ','
    elif dice.roll(6) == 0:
        chosen[at] = str(dice.roll(3_000))
    text = ' '.join(chosen)
    return text[0].upper() + text[1:] + dice.one_of(['. ', '. ', '? ', '.\n'])


ENGLISH = of_parts(sentence, 10)
