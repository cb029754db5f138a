object Main {
  def sign(n: Int): Int = if (n < 0) 0 - 1 else if (n == 0) 0 else 1;
  def said(b: Boolean): Boolean = { println("asked"); b };
  def main(args: Array[String]): Unit = {
    println(sign(0 - 5) + sign(0) + sign(9) + sign(9));
    println(false && said(true));
    println(true || said(false));
    println(true && said(false));
    println((1 < 2) == (4 >= 3));
    println(2L != 2L)
  }
}
