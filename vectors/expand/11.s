#ifndef NONE
#ifdef NONE
	( : )
#else
	- ( ( ( BX ) ) ) ( $ ) ( + ) ( ( ( : ) ) ) /* one */
#ifndef NONE
	( ( 8 ) ) ( ( ( : ) ) ) ( ( 0x10 ) ) ( 8 ) ( ( R8 ) )
	( ( ( AX ) ) ) // a comment
	( ( ( BX ) ) )
#else
	( ( ( MOVQ ) ) ) ( -> ) /* one */
	MOVQ ( ( : ) ) ( ( ( MOVQ ) ) ) /* one */
#endif
	( ( ( MOVQ ) ) ) ( ( ( 0x10 ) ) ) AX // a comment
	( ( ( AX ) ) ) +
#endif
#ifndef NONE
	( BX )
#endif
#else
	( ( ADDQ ) ) ( ( - ) ) ( ( BX ) ) ADDQ /* one */
#ifdef NONE
#ifndef NONE
	( ( ( + ) ) ) ( ( ( $ ) ) ) MOVQ
	( ( $ ) ) ( ( ( MOVQ ) ) ) << AX $
#else
	MOVQ - ( 8 ) ( ( ( R8 ) ) )
	( - ) ( ( ( + ) ) ) ( ( ( << ) ) ) // a comment
	: R8 $ ( BX )
	$ 0x10 /* one */
#endif
#else
#ifdef NONE
	( ( ( 0x10 ) ) ) ( MOVQ )
	R8 /* one */
	( ( ( : ) ) )
	<< - ( ( ( MOVQ ) ) ) R8 /* one */
#else
	( ( ( . ) ) ) ( -> ) ( ( ( : ) ) ) ( ( ( . ) ) ) ( ( ( << ) ) ) /* one */
	( + ) +
	AX ( BX ) ( << ) ( ( ( MOVQ ) ) ) ( ( -> ) ) /* one */
#endif
	( ADDQ ) . << ( ( ( R8 ) ) ) // a comment
#endif
	. ( ( ( 8 ) ) ) 0x10 // a comment
	( ( ( AX ) ) )
#endif
	<< ( - ) ADDQ 0x10 ( ( : ) ) /* one */
#define M0(a, b) b . BX ( b )
#define M1(a, b) 
#ifndef NONE
	+ - M0(M1 (->,M1(8, ADDQ)) AX, MOVQ M0 (,)) M1 (,ADDQ) ( << )
#else
#ifndef NONE
	( M0(, ( AX ) M1 (,)) ) M0(, M1 (,8) BX) MOVQ M1 (M1(. M0(MOVQ, - BX), ),) ADDQ /* one */
	M0 (M1(M0(: ., ) M1(-, ), ),) . 8 ( M1(M0 (AX 8,), -> M0 (AX,)) )
#else
	M1(M1 (M0(0x10, ADDQ -) ( R8 ),M0 (,ADDQ R8)), M0 (M0(-> 8, ) .,M0(8, -)) M1(: R8, )) /* one */
#ifndef M0
	MOVQ ( $ ) M0(R8, )
	M0 (MOVQ ( M0(, ADDQ) ),) M1(( M0 (BX,R8) ) ( M1 (- BX,BX BX) ), : M0(, M0 (BX ADDQ,))) 0x10 M0(M0(, ), -> M1 (M0 (.,+ .) M1 ($ ADDQ,0x10),M0 (,:)))
	M0(, $) M1 (( : ) 0x10,R8 M0(<<, M1(:, ->) ( + ))) M0(R8, ) /* one */
	M1(, 8 M1 (M0($, ) ADDQ,8 M0(+, 8))) M1(ADDQ MOVQ, :) M1(, :) M0(, AX) M1(M0 (M1(MOVQ, ADDQ),) M0(M1(, AX), M1 (0x10 R8,->) ( + )), M1(->, ))
#else
	-> M0(MOVQ $, <<) 8 M1 (,->) ( R8 ) // a comment
	M0 (,) . M1 (( M1 (<< .,-> BX) ),) M0(M1 (,M1(, 0x10 ADDQ)) M1 (M0(. <<, -) .,M0 (+,$ +) M0($, -)), ADDQ) ( M0(, ) ) /* one */
#endif
	M0(, ) /* one */
#endif
	AX ( . ) 0x10 M1 (M1(-> :, M1(R8, + +) M0 (R8 R8,- AX)) <<,BX ( M0(, ) )) // a comment
	$ // a comment
#ifndef M0
#ifdef NONE
	( M0 ($,) ) M0(, M0(M0 (-> <<,:), ) M0 (,M1(, R8) MOVQ)) AX
	( M1(- ->, M1(8 ADDQ, + MOVQ)) ) 8 - M1 (BX M1 (,MOVQ M0 (+ 8,)),: M1(BX ( ADDQ ), )) // a comment
	( M1(, M1(, ) M1(, BX)) ) R8 M0 (BX,<<) M1(M0 (( MOVQ ) R8,R8 <<), ->) M0(M0 (M0 (-> ->,ADDQ BX),), M0 (0x10,M0 (,+ ->) M0(, )))
#endif
	M1(, M0 ($ M1 (,. :),AX ( ADDQ ))) M1(BX M0(( BX ) ( - ), AX), M1 (M1(, ),) M0(M1($, -> -) +, )) M1 (,M1 (M0 (,-) M1(MOVQ 8, 8 0x10),)) << ( M0(8 M0(-, ), ( << )) )
#endif
#endif
	M1 (,M0 (,M0 (0x10 BX,R8 0x10))) M1(M1 (-,), M1(<< M0 (<<,BX), ) M1 (M1(+, 8 0x10),)) /* one */
#define M2(a) M0(R8 M1(BX +, AX .), ) M0 (,) 0x10
	ADDQ BX ( M0 (M2(8),M1(<<, 8)) ) /* one */
#define M3(a, b, c) M2(->)
	MOVQ ADDQ M0(M3(R8, R8, ), M2(M1 (- $,) ->)) /* one */
#ifndef NONE
#ifndef M3
	: // a comment
	M0(, M1(BX, M3 (,,: ADDQ) ( -> )) M0(BX, M1(, ) ( - ))) M3 (,M2(M1 (,) R8) M3(, , . M2 (<<)),( M2() ) .) M3(- R8, , ) ( M1(, ( AX )) ) // a comment
#ifndef M2
	M0(, ) -> /* one */
	M0(AX M2 (.), ) ( - ) M1(M1(M0(R8 8, ), ) ( M3(ADDQ, +, AX) ), MOVQ) M1 (M3(8, M2 (R8) 0x10, << M0 (,ADDQ MOVQ)),M1 (,M2 ()) M0(M3 (-,,), ))
	$ ( M2 (M2($ AX)) ) M1(, M1(M3(, , 8), -> M1 (-,))) /* one */
	M1(M3(->, M0(, 8 MOVQ), M3(+ ADDQ, , 0x10 0x10) M1 (-,)), M2(M0 (0x10,<<) M3(. ->, AX, AX ->)) M1 (,M2 (MOVQ) M2 (ADDQ ->))) M0 (ADDQ AX,M2 ()) M2() ( M3(M1 (<< +,8 $), : ( AX ), ) )
#else
	M2(( M0 (,<< R8) ) M0 (M2 (0x10 ADDQ) M3 (,R8,),ADDQ)) 8 M3 (M0 (M2(R8 <<),M3 (.,R8,.) M0 (ADDQ,MOVQ)) M0 (( $ ) M2(-),),M1(M0 (,) ->, + BX),)
#endif
#ifdef M0
	R8 << M0 (M0(., ),M0(, -)) M0(M2 (BX) M1(M0 (ADDQ,- 8) <<, ), ) ADDQ /* one */
	M0 (M2 (( MOVQ ) M2()),$ BX) AX ( M0(( - ), M0(8, $)) ) MOVQ /* one */
#else
	M1(M2() M1 (0x10 $,( << )), ) ( M2 () ) ( M3(, $ M0 (,->), ( ADDQ )) ) /* one */
	M1 (M2 (),( M3 (,+,) )) /* one */
	-> M0(M2(( . ) M0(AX, :)) M0 (,+), M2(+ M1 (,AX)) 0x10) 8 M3 (M3(ADDQ M1(MOVQ AX, - :), ( -> ) ( 8 ), M3 (,<< MOVQ,->)),M0(M3 (0x10 AX,R8 AX,) M1(0x10 ->, ADDQ), ) M2(),) $
	M2(<< ADDQ) M2 (M2(M3 (,->,AX) M1(-> +, - R8)) :) M3(M1(M2() M0(ADDQ, BX R8), ) ADDQ, , ) /* one */
#endif
#else
	M2(M1 (M1(<<, +) R8,M2 ()) .) - /* one */
#endif
#else
	M0(, ) M0 (M1(( -> ) ->, ),) M3 (,M1(M1 ($,+ 0x10), M1 (,BX)),) ( ( ( MOVQ ) ) ) M1 (,M1 (M1 (: BX,8) M2 (),8))
#ifndef M1
	M0 (,M0(AX, )) /* one */
	M1 (,M0(, ) .) 0x10 M0 (M0 (,M0(, -) M3 (ADDQ BX,,)),M1(( 0x10 ), M3 (AX,MOVQ,8) M0 (,BX)) M3 (0x10 M2(),,M2(- AX))) // a comment
	M2 (M1 (M2 (),M3 (,R8 :,0x10 0x10))) : M2(( ( ADDQ ) )) ( M1(, M0 (,BX)) ) M1(M3 (( 0x10 ),M2($ :),:) ->, -> M1 (,M1 (,))) /* one */
#endif
	AX // a comment
#endif
#define M4() M1 (-> M1(MOVQ 8, .),:) M2() M1(, ( AX ) M2(AX))
#define M5() 
	- M3 (,M1(ADDQ M5 (), +),) M3(M2 (), M5 (), ) M3 (,,M5()) + // a comment
	M0(M1 (,M4 () -) M5(), ) M0(M2 (), ) 0x10 8 M5() // a comment
	M0 (( M4() ) M0(M3(BX 0x10, : R8, ) +, M3(, ADDQ, BX 8) M1(. ->, )),M3 (-> 8,M1 (-,: BX) M0(<< <<, 8),M4()) M1(MOVQ M0 (,- <<), M3(:, AX AX, << MOVQ) ( 0x10 ))) 0x10 R8 8 ADDQ
#ifndef M3
	M0(, ) << M1 (AX,( M4() )) // a comment
#ifdef M2
#ifdef M0
	M3 (,( R8 ) BX,<< M1 (MOVQ,->)) BX /* one */
#else
	8 M1 (AX M4 (),) M1(M1 (MOVQ,-> +), )
	M3 (M3 (,,M5 ()) M1(MOVQ M2 (), M0(, MOVQ)),M1 (,) M4(),-> ->) + M3 (M3(M4 (), , M2(->)),M4 () <<,M4 ()) . ADDQ
	M2(M4() +) +
#endif
	<< ( M4 () )
#endif
	M5() M1 (M3 (M2 (- BX) -,,) M4 (),M1 (M1 (,->) :,) :) M2 (M5() M5()) M5() AX /* one */
	M2(:) /* one */
#else
#ifdef NONE
	M3(( M2() ), $, M1(( BX ) M3 (- 0x10,,ADDQ), ) M1(( -> ), MOVQ)) M4() M5() M0 (,( MOVQ )) // a comment
#ifdef M1
	M5 () M4 () M3 (ADDQ M3(M4(), 8, R8 M5()),<< M5(),M1 (,: M3 (ADDQ,<< :,:))) BX
	AX M3(M5() ( M2 (R8 .) ), , M4 ()) BX // a comment
	( ADDQ ) M0(M2(:) M1 (M3(8, 8, ),+ AX), BX M4()) M1(- $, M0(, ) :) M2() ( M0 (,M0 (,ADDQ .) $) ) // a comment
	+ ( M0 (M2 (R8) M0(R8, +),M1 (:,)) ) M3(M2(:) M3 (M0(, ADDQ AX),M4() M5(),M1(AX AX, )), - BX, M4 ()) /* one */
#else
	M0 (M3 (,,M3 (8,,8 0x10) M5()) .,M4 () M2()) // a comment
	-> M5() << M0 (,M1(, M5()) M1(( << ) M4 (), -> 8)) ->
#endif
#ifndef M5
	( M5 () ) 8 MOVQ // a comment
	M0 (,( ( : ) )) ( M3(, , ) ) M1(->, M3(, , ( 0x10 ) M0 (->,MOVQ 0x10))) M2 ($) // a comment
	M2(M4 () M1(( $ ), M2 () ( -> ))) M3 (<< ( -> ),M1 (M1(AX, -) $,),M4()) M2 (( -> )) M4 () M0(M3(, M1 (- BX,AX :) M3 (ADDQ 8,,), $), ( -> )) /* one */
#endif
#ifndef NONE
	<< M0 (M2 () :,) M2() /* one */
	M5 () M1(, ) // a comment
	M0(, ) M0 (MOVQ M2(),ADDQ) // a comment
	ADDQ M2 () M3 (ADDQ,BX M3 (M2(->) -,M1 ($,ADDQ),M4()),M0($, M3(, MOVQ, AX) M3(MOVQ 0x10, MOVQ 8, ADDQ ->)) <<) /* one */
#endif
#endif
	+ . . - M4 () /* one */
#endif
#define M6(a) M4()
#define M7(a) 
	M3 (M4 () M7(- +),M5(),0x10 M7()) M5() M6 () << // a comment
	BX M7 (: R8) /* one */
#define M8 MOVQ ADDQ M1 (M7 (<<),) + +
	M3(, , MOVQ .) $ /* one */
#ifdef M1
#ifndef M8
	BX << M0(-> <<, 0x10 AX) + /* one */
#endif
#else
	M6 (( M0(- R8, ADDQ ADDQ) ) .) :
	. // a comment
	- ( ( - ) ) M0 (,- M7 (M0(0x10 :, +) M6 (<<))) ADDQ // a comment
	$ ( - ) M3(M4(), M7 (( $ ) M5 ()) ->, AX <<) // a comment
#endif
#define M9 M8 AX ADDQ ( ( $ ) ) M4()
	M3(, M6 (+), R8 $) /* one */
#ifndef M1
	M8 ( AX ) /* one */
#else
	M4() // a comment
	M2 (M9 M8) // a comment
#ifndef M4
#ifndef M6
	M1 (M7 () $,M4() M0(, ))
	M5() M6() M9 // a comment
#endif
#ifdef M2
	M2(ADDQ +) . /* one */
	M0(, .)
	M3(, M0(, M4()), M4() ( M7 () )) M7 (M1(8 +, )) M6() +
#else
	M5 () ( M1(M4() ( -> ), M4() M8) )
#endif
	AX . . M5() /* one */
#else
	M4 () R8 M8
#ifdef NONE
	-> M3(M6(M0 (,. 0x10)) M6(), , M7 (. M9) ( ( BX ) )) M2(M2() M8) M0(M6 (), ( M9 )) // a comment
#endif
	( M3(->, M8 M8, M0 (->,) M1 (,)) ) R8 M0 (AX ( - ),) M6 (( M6 () ) M0 (,M2 (- MOVQ))) M1(M1 (M6 (0x10 ->),M4 () M1 (,- -)) M2 (M8), ) /* one */
#ifndef M4
	M6 (<<) M2 (M5 () M1(, )) BX // a comment
	( ( M8 ) ) M8 8 M7(M8 ( M0 (,) )) // a comment
#else
	0x10 // a comment
	0x10 M7 () M4 () M8 .
#endif
#endif
	M3($ M9, , M5() M3 (,M5 (),M7 (-> -))) M6 (R8) ( M7(M9) ) 8 ( << ) /* one */
#endif
#define M10() 
#define M11 \
 -> M7 ()
#define M12(a, b, c) 
#define M13(a) - ( - ) a
#define M14() M1(0x10, ) \
 M12 (M9,,)
#ifdef M3
	MOVQ M7(M10()) ( M0(, ) ) /* one */
#else
	M7(+ ( M8 )) 8 BX M13 () /* one */
#ifdef M7
#ifndef M11
	M6(M10 ()) // a comment
	M13 (BX) M7(M2 (R8)) M8 // a comment
	M12(( M7(R8 -) ), M9 ( M3(, + $, << AX) ), M3(, BX M0 (+ BX,), M9)) ( ( M7 (BX .) ) ) + M9 M10() // a comment
	M6(M14() M11) M7 (M1(( MOVQ ), << ( : ))) M13 (M8) M4() M7 (AX M1(M0 (ADDQ $,. AX) ->, M5 ())) /* one */
#else
	( - ) M14() M9 AX M11
	( : ) /* one */
	$ // a comment
#endif
	( + ) M9 M7() ( M4() ) M10 ()
	( R8 ) $ // a comment
#endif
	AX M1(, M6()) M6(M12 (M2 (BX),M4 () 8,) M5 ()) M12(M6(), , M14 () M9)
#endif
#ifdef M14
	M0 (: ADDQ,( . )) ADDQ ( ( M3 (,ADDQ,+) ) ) // a comment
	0x10 /* one */
#ifndef M4
#ifndef M9
	M13 ()
	<< M14 () M6 (M4 () M2(M10 () M9)) M4() M12(M7(), M12 (M0(ADDQ ->, ADDQ $),M7 (+) <<,( -> ) ( -> )) 8, 0x10) /* one */
	M8 AX // a comment
#endif
	M10() -> M8 M14() /* one */
#else
	8 AX M1(, M3 (,M2(),M3 (:,AX,) M11) ADDQ) M10 () M11
#ifdef M1
	M0 (M13 (( ADDQ ) .),8 MOVQ) . M2(->) M7 () - // a comment
#endif
	-> M7() M10 () M7() . /* one */
#ifndef M0
	+ AX << M3(<<, ( M0 (. .,) ), M7 ()) M3 (,( ( ADDQ ) ) M7 (M2 () ( 0x10 )),BX ( M11 )) /* one */
	-> ( ( R8 ) ) $ M5 () M2 () /* one */
	+ M5() M1 (R8,M4() 0x10) R8 M10() // a comment
	ADDQ // a comment
#endif
#endif
#endif
#undef M14
#define M15(a, b, c) M4 () M12(, M13 () ( 8 ), -) ADDQ b
#define M16(a, b) ( M5 () ) ( MOVQ ) ( ADDQ ) \
 b
#define M17(a) \
 a
#define M18(a, b, c) ( M9 ) M1(0x10, ) c c
#define M19(a) 
#ifdef M5
#ifndef M18
	M0(. M6 (+), M7 (M2(-)) M8) - ( M13(M2()) ) ( M15 (,0x10,$) ) M4()
#ifndef M13
	M16(, M3 (M16(0x10 -, 0x10 +) M17(<< 0x10),,) M16 (M12 (-,-,),M13(:) ADDQ)) // a comment
#else
	AX - : ADDQ /* one */
	M0(M9, ->)
#endif
#else
	M5() - M4() /* one */
#ifdef M15
	$ /* one */
#else
	<< AX M17 () . M6(M7(M18 (,- <<,) M5()))
#endif
#ifdef M2
	. : M15 (,,MOVQ $) M19() M16 (,)
	8 /* one */
	M2()
#else
	M11 M7(MOVQ M6(M15(0x10 ., 0x10, << R8))) M12 (,,) -> /* one */
	M6()
	. ADDQ M0(M10(), ( M19() )) ( M9 ) /* one */
	M7 () << ADDQ // a comment
#endif
#endif
	M12(M8 :, M0(M6 (-> R8) M9, +) M0 (( $ ),M1(<<, 0x10) ->), 8) ( M12(M13 (R8) M8, $ BX, ) ) /* one */
	<< - M10() M7 () // a comment
#ifdef M9
#ifndef M9
	-> M13(M10 () BX) M16 (- .,<<) MOVQ /* one */
	AX // a comment
	M2 () // a comment
#else
	M5() M10 () /* one */
#endif
	M19 () M10 () /* one */
#else
	( $ ) BX M17()
#ifndef M12
	R8 + ( M3 (,,0x10 -) ) << M12 (,:,( M2 (-) )) // a comment
#endif
	M3 (,M15(AX AX, M11, MOVQ M11),M8 ( . ))
#endif
#else
#ifndef M8
	M17 (->) // a comment
#ifdef M12
	. M3 (,ADDQ,) M0(, AX ( M7 () )) M17(M18 (<<,<< M19(MOVQ),<< M16(BX, MOVQ ADDQ))) M9
#else
	ADDQ /* one */
	( 8 ) . M16(. M2(M0 (BX .,AX)), ) 0x10 // a comment
#endif
#endif
	+ M2(( . )) ( ( MOVQ ) ) M1(M13 (), M10())
#ifdef M5
#ifdef M12
	BX /* one */
	M13 (( M13(+ $) ) M1 (M15(, , .) 0x10,AX +)) . : . ( M19 () ) /* one */
	( R8 ) M7 () M11
	M0 (8,M5()) // a comment
#endif
	M8 ( M16 (M19() :,$ M3(BX 8, MOVQ +, MOVQ 0x10)) ) ( ( 0x10 ) ) M18 (( ( BX ) ) M13(MOVQ .),AX M10 (),M18(( -> ), , M18 (8 +,R8 0x10,<<) M18 (8 AX,R8 0x10,$ :)) M2()) // a comment
#ifdef M2
	M9 M18(M17 (), M19 (M8 M2()) M9, M15 (AX M18 (0x10,,- :),,ADDQ M7(.)) M7($)) M17(M0(MOVQ, )) AX 0x10 /* one */
	( 8 ) M13(M19 (MOVQ))
#else
	. . M15(, M19(M12 (,<< MOVQ,R8)) +, M15 (,,) M16(8, M13(: $))) M17 () R8 /* one */
	M0(( M15(0x10 R8, ADDQ, ) ) <<, ) AX M19 (M9 ( 0x10 )) // a comment
#endif
#else
	( M8 ) // a comment
	M0(, ) ( + ) /* one */
#endif
#endif
#define M20(a, b, c) b ( 0x10 ) $
#ifdef M9
	M13 () /* one */
#ifndef M10
#ifndef M18
	( M11 ) /* one */
	M15 (R8,->,M19 (M8) R8) M18 (,,) M7(->) M8 // a comment
	M7() ( ( 0x10 ) ) ( + ) M12(- -, M2 (M0(<< ->, $ ->)) AX, M13 () M10 ()) M0(MOVQ MOVQ, R8 M3 (,<< M3($, -, + $),M18(, AX, ))) /* one */
	M5() M6()
#endif
	8 ( -> ) 8 . M12 (M1(M0(MOVQ, 0x10 .) M4 (), :),M3 (M12 (->,<<,R8),M18 (<< ->,0x10,),<< M13(-> .)) M6(M10() M17 (AX)),M19 (-) ( M4 () )) /* one */
#endif
#ifdef M3
#ifdef M4
	: ( M2() ) ( M19(M11) ) 8 /* one */
#else
	8 . M7 () M11 // a comment
	: /* one */
#endif
#ifdef M8
	M9 MOVQ -> M1(, ) /* one */
	M6 (M18(M10 () ADDQ, 8 ( $ ), ) ( M17 ($ :) )) M3(( M20 (+,. AX,+ ADDQ) ), ADDQ M10(), M12 (M13(AX),( 0x10 ) ( MOVQ ),)) M18 (,M0 (( . ),) M1(M5(), ),M6(M1(, )) M9) M15 (M2(),( . ) ( M8 ),. ( 8 )) -> // a comment
	M6 (8) R8 /* one */
	M6 () M10()
#else
	M11 M7(AX ADDQ) $ M15 (M1(M3(AX, , ) M9, M8 M20(AX 8, AX, )),M0 (M6 (),),M19 (ADDQ MOVQ) 8) M2(.) /* one */
	M0 (M6 () M12 (,,$),) M2(: M15(, M5 () ->, M18 (,. ->,MOVQ))) /* one */
	M8 $ M5 () 8 ADDQ
	M6(ADDQ -) . // a comment
#endif
	. M2 (M5() M18(BX M8, M4() M0(-> R8, ), M13 () M19())) M9 M4() M10()
	BX R8 // a comment
#else
	M19() M10() M20(, M8 <<, M0 (M0(, R8 :),( : )) M20(M15(<< ., , << ADDQ) M20 (0x10,,), , )) M6(AX M0(M1(->, : ADDQ) M7(->), M6 (<<))) M13 (<<) /* one */
	MOVQ - ADDQ 0x10
	: ( $ ) M20 (M6(M7 ()),,M9) 8 M5()
#endif
#else
	AX
#ifndef M11
#ifndef M6
	+ // a comment
#endif
#else
#ifndef M4
	( M1(. M3(, , 0x10 ADDQ), M9 M9) ) M3 (M9 ADDQ,M16(, 0x10),)
	- M20(M9, R8, M7 (0x10 M2(AX))) M0(M3(M3(-> R8, 8 ->, ADDQ .), M15 (,->,+ AX) 8, ), M3(: M0 (<<,.), + ( BX ), )) M11 /* one */
	MOVQ M9 0x10 // a comment
	M0(M2 (), ( << ) ADDQ) M20 (M15(, M7 (0x10) M7 (), M9 M1 (,)) M6 (M4 ()),ADDQ,) M3 (( M0(, ->) ),,M3 (M15 (0x10,BX,-) M11,0x10,M18(, : 0x10, ) M4 ()) ( - )) BX // a comment
#else
	R8 M13 (M16 (+ M19 (0x10),)) M1(M0($ :, M7 (AX :)), M2 (<< :) M15 (,M6(8) M0 (BX MOVQ,),)) M7(M12(0x10, M17(AX <<), M7 (-))) // a comment
#endif
#ifdef M5
	M16 (M12 (M10(),,: ( ADDQ )),) M19(BX AX) M17 (( 0x10 )) M8 /* one */
#else
	M0 (,) ( -> )
#endif
#endif
#ifdef M8
#ifdef M3
	R8 ( M6 () ) M8 M16(M9, ) M0(, ) /* one */
	+ M20 (( . ) ( + ),,+ MOVQ) M16 (( ( . ) ),AX) // a comment
#endif
	( ( M9 ) ) /* one */
	.
#else
#ifdef M3
	M12(. ADDQ, , .) AX ADDQ /* one */
	. M11
	8 // a comment
#else
	M5() M7(- +) M20(0x10 :, M20(( : ), , ) M19(->), M6 (( 8 ) ( 0x10 )) MOVQ) M4 () // a comment
#endif
	M2()
	+ M16(<< M3 (M6 () M17(-> AX),,), R8) M10 () /* one */
#endif
	- + M3 (M3(M8, , ( $ )),M4 (),: M18(( BX ), , ADDQ ( 0x10 ))) M4 () // a comment
#endif
#define M21(a) . \
 8 MOVQ
#ifdef M1
#ifdef M9
	M4() M0(0x10, ) R8
#ifndef M7
	M6() // a comment
	0x10 8 M12(, , AX .) // a comment
#else
	( M7() ) M3(M8 M7 (M20(MOVQ R8, ->, )), . R8, $ AX) M6() 0x10 :
	( M18 (,<<,M15 (,,AX :) M9) ) . 0x10 . M7 () /* one */
	M20 (M20 (,,),,->) MOVQ ( M0 (,M2 (<< -) -) ) /* one */
#endif
#ifdef M0
	M13 (+) // a comment
#else
	M15 (( ( MOVQ ) ),,M20 (BX ( ADDQ ),M21 ($),8)) /* one */
	M16(, ) M11 M8 M10 () /* one */
#endif
	. M15(( M10 () ), M11, ) AX ADDQ R8
#else
	M5 () // a comment
#ifndef M4
	->
#endif
#ifndef M11
	M17 () M10 () M12(M0(M17(BX) M7 (ADDQ <<), ), M6 (8) ( M12(MOVQ, MOVQ ., $ :) ), M1 (M6 (ADDQ) M15 (R8 R8,AX $,R8),)) M10() M18 (8,M17(),M9) /* one */
	+ -> M8
#else
	0x10 M17()
	( M16 (,) ) AX BX M21(8) AX /* one */
	( ( - ) ) M7() M4()
#endif
	( M10 () ) $
#endif
	: M19 () M21(M8)
#ifdef M3
#ifndef M9
	M15 (,M8 M12(M13($) AX, AX ., ),M4() ( M9 )) M9 // a comment
	M0(, BX M0(, M9)) M5 () /* one */
#else
	M21 (M13(8 M17 (-))) M15 (,M6 () M19($ M10 ()),M6 (-)) // a comment
	M4() M7 () M17(( << )) M4()
	0x10 M3(M4(), , M11 ( M16 (->,MOVQ) )) : R8
#endif
	ADDQ ( M6() ) R8 ( M2 (M2()) ) $ // a comment
	M16 (,) AX M13(M15 (,M4 () 8,( << ) M10 ())) -> M6 () // a comment
#else
	( M18(. M4 (), M4() M19 (:), ( MOVQ )) ) << M9 M11 $
#ifndef M5
	M6 () AX M4() /* one */
	M9 ( M3 (M4 (),<<,M6()) ) M6(<<) 0x10
#endif
	<< M7(MOVQ M13(( : ) :)) M1 (8 ( M15 ($,-,) ),) ( M18(, 8 M3(MOVQ, 0x10 ., BX), ) ) -> /* one */
	M4 () /* one */
#endif
	->
#else
	M7(M2 () M1 (,( + ) M9)) M4() M0 (( ( R8 ) ) M5(),) M0 (( << ),M17 (-> M16(ADDQ, 0x10 $)) M11) /* one */
#ifdef M20
	ADDQ ( M6(M11 -) ) M3(( M8 ) BX, M19() AX, ) M4() M3($ M12(( AX ), , M13 (BX BX)), M18(( - ), M17(<< ADDQ), ( BX )) M9, 0x10 $) /* one */
#endif
	MOVQ
#endif
#define M22(a, b) b
	( M20 (+ M15(: 0x10, BX -, ),R8,M13(-> R8) M9) ) M4 () M9
	M1 (-> $,) + M20 (,M3(, M20(R8 BX, -, BX), ) M11,M3 (M2(ADDQ :),M20 (MOVQ +,:,ADDQ),)) $
#undef M22
	ADDQ : 0x10 // a comment
#define M23(a, b) M15(( a ) a, , M12(BX, AX, ->) ( a )) b
#define M24 -> M16(M16 (,:) M21(), ) M23(M15 (,ADDQ $,ADDQ) 8, M11 :) M11 M0 (8 -,-)
#define M25(a, b, c) 
#define M26(a, b, c) ( c ) ( b ) M17 (c) c 0x10
#define M27(a) 
	M15(ADDQ, , BX) // a comment
#undef M27
#define M28 M9 M18 (M19(),AX M10(),( $ )) \
 8 BX
